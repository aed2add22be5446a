# Labels that no code sets: the static fields' initial values.
.class public final Lpump/Labels;
.super Ljava/lang/Object;

.field public static final CLEAR_FAULT:Ljava/lang/String; = "clear fault"
.field public static final CLEAR_TOTALS:Ljava/lang/String; = "clear totals"
.field public static final LITRES:Ljava/lang/String; = "Liter \u00fcber alles"
.field public static final LIMIT:I = 0x1a
.field public static total:J

.method public constructor <init>()V
    .registers 1
    invoke-direct {p0}, Ljava/lang/Object;-><init>()V
    return-void
.end method
