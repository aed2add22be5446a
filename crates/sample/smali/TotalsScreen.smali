# The other screen: type, field and method uses of every form, a sparse switch and an array.
.class public Lpump/TotalsScreen;
.super Lpump/Screen;

.field private litres:[I

.method public constructor <init>()V
    .registers 1
    invoke-direct {p0}, Lpump/Screen;-><init>()V
    return-void
.end method

.method public title()Ljava/lang/String;
    .registers 2
    const-string v0, "clear totals"
    return-object v0
.end method

.method public show(I)V
    .registers 4
    sparse-switch p1, :table
    return-void
    :first
    invoke-virtual {p0}, Lpump/TotalsScreen;->title()Ljava/lang/String;
    move-result-object v0
    invoke-virtual/range {p0 .. p0}, Lpump/TotalsScreen;->clear()V
    return-void
    :table
    .sparse-switch
        0x7 -> :first
        0x1a -> :first
    .end sparse-switch
.end method

.method public clear()V
    .registers 3
    const/4 v0, 0x5
    new-array v0, v0, [I
    fill-array-data v0, :months
    iput-object v0, p0, Lpump/TotalsScreen;->litres:[I
    sget-wide v0, Lpump/Labels;->total:J
    sput-wide v0, Lpump/Labels;->total:J
    return-void
    :months
    .array-data 4
        0x1a
        0x5
        0x22
        0x6e
        0x7fffffff
    .end array-data
.end method

.method public static of(Ljava/lang/Object;)Lpump/Screen;
    .registers 3
    instance-of v0, p0, Lpump/FaultScreen;
    if-eqz v0, :other
    check-cast p0, Lpump/FaultScreen;
    return-object p0
    :other
    new-instance v0, Lpump/TotalsScreen;
    invoke-direct {v0}, Lpump/TotalsScreen;-><init>()V
    return-object v0
.end method

.method public static kinds()[Ljava/lang/Object;
    .registers 3
    const-class v0, Lpump/FaultScreen;
    const-class v1, Lpump/TotalsScreen;
    filled-new-array {v0, v1}, [Ljava/lang/Object;
    move-result-object v0
    return-object v0
.end method
