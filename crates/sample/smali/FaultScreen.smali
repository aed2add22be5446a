# A use of a phrase by const-string and one by const-string/jumbo, and a switch table after the code.
.class public Lpump/FaultScreen;
.super Lpump/Screen;

.method public constructor <init>()V
    .registers 1
    invoke-direct {p0}, Lpump/Screen;-><init>()V
    return-void
.end method

.method public title()Ljava/lang/String;
    .registers 2
    const-string v0, "clear fault"
    return-object v0
.end method

.method public show(I)V
    .registers 4
    packed-switch p1, :table
    const-string/jumbo v0, "clear totals"
    goto :done
    :first
    const-string v0, "clear fault"
    goto :done
    :second
    const-string v0, "restart pump"
    :done
    invoke-virtual {p0, v0}, Lpump/Screen;->show(Ljava/lang/String;)V
    return-void
    :table
    .packed-switch 0x1
        :first
        :second
    .end packed-switch
.end method

# The tail of `const v0, 0x5001a` reads as a const-string of another index: a candidate that no walk confirms.
.method public static code()I
    .registers 1
    const v0, 0x5001a
    return v0
.end method
