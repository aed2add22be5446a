# Every kind of payload between uses of one phrase. Each payload holds the units 0x001a 0x0008, which read as a const-string of the phrase
# (string 8). Walked as if it were instructions, each would have that confirmed, and the use after it stepped over.
.class public Lpump/Keys;
.super Ljava/lang/Object;

.method public static label(I)Ljava/lang/String;
    .registers 3
    const-string v0, "hold to clear"
    packed-switch p0, :packed
    goto :second
    :packed
    .packed-switch 0x8001a
        :second
        :last
        :second
        :third
    .end packed-switch
    :second
    const-string/jumbo v0, "hold to clear"
    sparse-switch p0, :sparse
    goto :third
    :sparse
    .sparse-switch
        0x1 -> :third
        0x8001a -> :third
        0x100000 -> :last
    .end sparse-switch
    :third
    const-string v0, "hold to clear"
    const/4 v1, 0x4
    new-array v1, v1, [S
    fill-array-data v1, :units
    goto :last
    :units
    .array-data 2
        0x1a
        0x8
        0x12
        0x18
    .end array-data
    :last
    const-string v0, "hold to clear"
    return-object v0
.end method

# The method's code begins with a payload, whose data have an odd number of bytes.
.method public static first()Ljava/lang/String;
    .registers 1
    .array-data 1
        0x1at
        0x0t
        0x8t
        0x0t
        0x12t
        0x0t
        0x14t
    .end array-data
    const-string v0, "hold to clear"
    return-object v0
.end method
