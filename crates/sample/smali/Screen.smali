# What every screen of the pump's display has. An abstract class: `title` has no code.
.class public abstract Lpump/Screen;
.super Ljava/lang/Object;

.field protected shown:Ljava/lang/String;
.field protected count:I

.method public constructor <init>()V
    .registers 1
    invoke-direct {p0}, Ljava/lang/Object;-><init>()V
    return-void
.end method

.method public abstract title()Ljava/lang/String;
.end method

.method public show(Ljava/lang/String;)V
    .registers 3
    iput-object p1, p0, Lpump/Screen;->shown:Ljava/lang/String;
    iget v0, p0, Lpump/Screen;->count:I
    add-int/lit8 v0, v0, 0x1
    iput v0, p0, Lpump/Screen;->count:I
    return-void
.end method
