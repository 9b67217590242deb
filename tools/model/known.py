"""The known answers 1 to 14 of 01 (docs/RULES.md), the listing of `spans`, errors that look right, and what was worked out by hand from 02's words: image
files, counts of pixels, outlines over their fills, connected lines, image files that are read back, rows with gaps between them."""

# Under each number the lines that ask for it and, behind ->, the answers.
KNOWN = """
1   length 0 0 0 0 -> 0 1
    point 0 0 0 0 0 -> 0 0 0
2   length 0 0 2 1 -> 0 3
    point 0 0 2 1 0 -> 0 0 0
    point 0 0 2 1 1 -> 0 1 0
    point 0 0 2 1 2 -> 0 2 1
3   length 2 1 0 0 -> 0 3
    point 2 1 0 0 0 -> 0 2 1
    point 2 1 0 0 1 -> 0 1 1
    point 2 1 0 0 2 -> 0 0 0
4   length 0 0 5 2 -> 0 6
    point 0 0 5 2 0 -> 0 0 0
    point 0 0 5 2 1 -> 0 1 0
    point 0 0 5 2 2 -> 0 2 1
    point 0 0 5 2 3 -> 0 3 1
    point 0 0 5 2 4 -> 0 4 2
    point 0 0 5 2 5 -> 0 5 2
    point 0 0 5 2 6 -> 7 0 0
5   span 0 0 4 2 2 1 0 -> 0 0 2
    span 0 0 4 2 2 1 1 -> 0 2 4
    span 0 0 4 2 2 1 2 -> 0 4 5
6   inside 0 0 86400 0 0 40000 20000 10000 -> 0 1
7   discspan 0 0 3 0 -> 0 1 2
    discspan 0 0 3 1 -> 0 0 3
    discspan 0 0 3 2 -> 0 1 2
8   discspan 0 0 4 0 -> 0 1 3
    discspan 0 0 4 1 -> 0 0 4
    discspan 0 0 4 2 -> 0 0 4
    discspan 0 0 4 3 -> 0 1 3
9   disc 0 0 0 0 0 -> 0 0
    discspan 0 0 0 0 -> 0 0 0
    disc 0 0 1 0 0 -> 0 1
    discspan 0 0 1 0 -> 0 0 1
10  frame 10 1 1 0 2 2 -> 0 2
    pixel 9 0 1 -> 0 1
    dump 0 2 -> 0040
11  frame 4 1 2 0 1 1 -> 0 1
    pixel 1 0 3 -> 0 1
    dump 0 1 -> 30
    frame 2 1 4 0 1 1 -> 0 1
    pixel 1 0 10 -> 0 1
    dump 0 1 -> 0a
12  frame 1 1 24 0 3 3 -> 0 3
    pixel 0 0 66051 -> 0 1
    dump 0 3 -> 030201
    frame 1 1 24 1 3 3 -> 0 3
    pixel 0 0 66051 -> 0 1
    dump 0 3 -> 010203
13  frame 10 3 1 0 0 2 -> 0 6
    frame 10 3 1 0 0 1 -> 14 0
    frame 9 5 2 0 0 3 -> 0 15
    frame 9 5 2 0 0 2 -> 14 0
    frame 7 2 24 0 0 21 -> 0 42
    frame 7 2 24 0 0 20 -> 14 0
14  length 131071 0 0 0 -> 0 131072
    length 0 131071 0 0 -> 0 131072
    length 0 0 131071 0 -> 0 131072
    length 0 0 0 131071 -> 0 131072
    length 131072 0 0 0 -> 5 0
    length 0 131072 0 0 -> 5 0
    length 0 0 131072 0 -> 5 0
    length 0 0 0 131072 -> 5 0
    disc 131071 0 1 131071 0 -> 0 1
    discspan 131071 0 1 0 -> 0 131071 131072
    disc 131071 0 2 131071 0 -> 6 0
    discspan 131071 0 2 0 -> 6 0 0
    frame 2048 1 8 0 0 2048 -> 0 2048
    frame 2049 1 8 0 0 2049 -> 2 0
    frame 2048 1 1 0 0 256 -> 0 256
    frame 2049 1 1 0 0 257 -> 2 0
spans rows 0 0 4 0 0 4 -> 0 0 5
    span 0 0 4 0 0 4 0 -> 0 0 5
    span 0 0 4 0 0 4 1 -> 0 0 4
    span 0 0 4 0 0 4 2 -> 0 0 3
    span 0 0 4 0 0 4 3 -> 0 0 2
    span 0 0 4 0 0 4 4 -> 0 0 1
errors inside 0 0 4 2 2 1 1 0 -> 0 1
    inside 0 0 4 2 2 1 2 1 -> 0 1
    inside 2 1 0 0 4 2 1 0 -> 0 1
    inside 0 0 -2 2 2 0 -1 0 -> 0 0
    disc 0 0 3 0 0 -> 0 0
one-bit frame 10 3 1 0 6 2 -> 0 6
    preset 255 -> 0
    fill 0 -> 0 30
    pixel 0 0 1 -> 0 1
    pixel 9 1 1 -> 0 1
    line 0 2 9 2 1 -> 0 10
    dump 0 6 -> 803f007fffff
    imagesize -> 0 14
    wipe 170 -> 0
    image 13 -> 9 0
    file 0 14 -> aaaaaaaaaaaaaaaaaaaaaaaaaaaa
    image 14 -> 0 14
    file 0 16 -> 50340a313020330a80000040ffc0aaaa
grey frame 2 1 8 0 2 2 -> 0 2
    pixel 0 0 7 -> 0 1
    pixel 1 0 200 -> 0 1
    image 65536 -> 0 13
    file 0 14 -> 50350a3220310a3235350a07c8c0
colour frame 1 1 24 0 3 3 -> 0 3
    pixel 0 0 66051 -> 0 1
    dump 0 3 -> 030201
    wipe 0 -> 0
    image 14 -> 0 14
    file 0 15 -> 50360a3120310a3235350a01020300
    frame 1 1 24 1 3 3 -> 0 3
    pixel 0 0 66051 -> 0 1
    dump 0 3 -> 010203
    wipe 0 -> 0
    image 14 -> 0 14
    file 0 15 -> 50360a3120310a3235350a01020300
refused frame 3 2 16 0 12 6 -> 0 12
    imagesize -> 10 0
    image 0 -> 10 0
    image 65536 -> 10 0
    frame 0 2 1 0 0 0 -> 0 0
    imagesize -> 10 0
    image 65536 -> 10 0
    frame 3 2 8 0 5 3 -> 0 6
    imagesize -> 0 17
    image 0 -> 3 0
    frame 3 2 8 0 6 3 -> 0 6
    image 16 -> 9 0
    image 17 -> 0 17
    frame 2049 1 1 0 0 257 -> 2 0
    imagesize -> 2 0
    image 0 -> 2 0
    file 0 15 -> 50350a3320320a3235350a00000000
placed frame 8 4 1 0 4 1 -> 0 4
    pixel 7 3 1 -> 0 1
    pixel 7 3 1 -> 0 1
    pixel 8 3 1 -> 0 0
    pixel 7 4 1 -> 0 0
    pixel -1 0 1 -> 0 0
    pixel 0 -2147483648 1 -> 0 0
    pixel 7 3 2 -> 4 0
    dump 0 4 -> 00000001
counted frame 8 4 1 0 4 1 -> 0 4
    fill 1 -> 0 32
    fill 1 -> 0 32
    fill 2 -> 4 0
    line 0 0 7 0 0 -> 0 8
    line -3 0 2 0 0 -> 0 3
    line 0 4 7 4 0 -> 0 0
    line 6 1 6 131072 0 -> 5 0
    triangle 0 0 3 0 0 3 1 -> 0 10
    triangle -4 0 -1 0 -4 3 1 -> 0 0
    outline 0 0 3 0 0 3 1 -> 0 9
    outline 5 0 8 0 5 3 1 -> 0 8
    outline 0 0 4 0 2 0 1 -> 0 5
    outline 0 0 2 1 0 0 1 -> 0 3
    outline 1 1 1 1 1 1 1 -> 0 1
    outline 9 1 9 1 9 1 1 -> 0 0
    circle 0 0 4 1 -> 0 12
    circle 6 0 4 1 -> 0 6
    circle -2 -2 4 1 -> 0 3
    circle -3 -3 4 1 -> 0 0
    circle 0 0 0 1 -> 0 0
    circle 131071 0 2 1 -> 6 0
lights frame 10 3 1 0 8 2 -> 0 6
    preset 255 -> 0
    lit -> 0 30
    fill 0 -> 0 30
    dump 0 8 -> 003f003f003fffff
    lit -> 0 0
    pixel 9 1 1 -> 0 1
    line 0 2 9 2 1 -> 0 10
    lit -> 0 11
    frame 0 3 1 0 0 0 -> 0 0
    preset 255 -> 0
    lit -> 0 0
    frame 10 3 1 0 5 2 -> 0 6
    lit -> 3 0
    frame 10 3 2 0 8 3 -> 0 9
    lit -> 3 0
    frame 10 3 2 0 9 3 -> 0 9
    lit -> 10 0
    frame 2049 1 1 0 257 257 -> 2 0
    lit -> 2 0
    frame 2049 1 3 0 0 769 -> 1 0
    lit -> 1 0
designer online 2 1 0 0 1 1 -> 0 1
    inside 2 1 0 0 2 0 1 1 -> 0 0
    frame 3 2 1 0 2 1 -> 0 2
    outline 2 1 0 0 2 0 1 -> 0 4
    read 1 1 -> 0 0
    dump 0 2 -> e020
    outline 0 0 2 0 2 1 1 -> 0 4
    outline 2 0 2 1 0 0 1 -> 0 4
    dump 0 2 -> e020
    triangle 2 1 0 0 2 0 1 -> 0 4
    dump 0 2 -> e020
outlined frame 8 4 1 0 4 1 -> 0 4
    outline 6 0 0 0 0 3 1 -> 0 14
    dump 0 4 -> fe98e080
    outline 0 3 6 0 0 0 1 -> 0 14
    dump 0 4 -> fe98e080
    triangle 0 3 6 0 0 0 1 -> 0 16
    dump 0 4 -> fef8e080
    outline 0 0 0 3 6 0 0 -> 0 14
    dump 0 4 -> 00600000
flat frame 8 4 1 0 4 1 -> 0 4
    outline 0 0 4 2 2 1 1 -> 0 5
    dump 0 4 -> c0300800
    outline 2 1 4 2 0 0 1 -> 0 5
    dump 0 4 -> c0300800
    triangle 4 2 2 1 0 0 1 -> 0 5
    dump 0 4 -> c0300800
    fill 0 -> 0 32
    outline 5 1 4 3 6 -1 1 -> 0 4
    dump 0 4 -> 02040408
connected tracelength 0 0 0 0 -> 0 1
    tracepoint 0 0 0 0 0 -> 0 0 0
    tracepoint 0 0 0 0 1 -> 7 0 0
    tracelength 0 0 -3 0 -> 0 4
    tracepoint 0 0 -3 0 2 -> 0 -2 0
    tracelength 0 0 2 1 -> 0 4
    tracepoint 0 0 2 1 0 -> 0 0 0
    tracepoint 0 0 2 1 1 -> 0 1 0
    tracepoint 0 0 2 1 2 -> 0 1 1
    tracepoint 0 0 2 1 3 -> 0 2 1
    tracepoint 0 0 2 1 4 -> 7 0 0
    tracepoint 2 1 0 0 0 -> 0 2 1
    tracepoint 2 1 0 0 1 -> 0 1 1
    tracepoint 2 1 0 0 2 -> 0 1 0
    tracepoint 2 1 0 0 3 -> 0 0 0
    tracelength 0 0 5 2 -> 0 8
    tracepoint 0 0 5 2 1 -> 0 1 0
    tracepoint 0 0 5 2 2 -> 0 1 1
    tracepoint 0 0 5 2 3 -> 0 2 1
    tracepoint 0 0 5 2 4 -> 0 3 1
    tracepoint 0 0 5 2 5 -> 0 3 2
    tracepoint 0 0 5 2 6 -> 0 4 2
    tracepoint 0 0 5 2 7 -> 0 5 2
    ontrace 0 0 5 2 3 2 -> 0 1
    ontrace 0 0 5 2 4 1 -> 0 0
    ontrace 0 0 5 2 6 2 -> 0 0
    ontrace 0 0 5 2 2147483647 -2147483648 -> 0 0
    tracelength -131072 -131072 131071 131071 -> 0 524287
    tracepoint -131072 -131072 131071 131071 524286 -> 0 131071 131071
    tracepoint -131072 -131072 131071 131071 524287 -> 7 0 0
    tracelength 131072 0 0 0 -> 5 0
    tracepoint 0 0 0 -131073 9 -> 5 0 0
    ontrace 0 0 131072 0 0 0 -> 5 0
right tracepoint 3 3 6 4 2 -> 0 4 4
    tracepoint 3 3 4 6 2 -> 0 3 5
    tracepoint 3 3 2 6 2 -> 0 2 4
    tracepoint 3 3 0 4 2 -> 0 1 3
    tracepoint 3 3 0 2 2 -> 0 2 2
    tracepoint 3 3 2 0 2 -> 0 3 1
    tracepoint 3 3 4 0 2 -> 0 4 2
    tracepoint 3 3 6 2 2 -> 0 5 3
    tracepoint 0 0 2 2 1 -> 0 0 1
    tracepoint 0 0 2 2 3 -> 0 1 2
    tracepoint 2 0 0 2 1 -> 0 1 0
    tracepoint 2 2 0 0 1 -> 0 2 1
    tracepoint 0 2 2 0 1 -> 0 1 2
traced frame 8 4 1 0 4 1 -> 0 4
    line 0 0 5 2 1 -> 0 6
    dump 0 4 -> c0300c00
    trace 0 0 5 2 1 -> 0 8
    dump 0 4 -> c0701c00
    fill 0 -> 0 32
    trace 5 2 0 0 1 -> 0 8
    trace 5 2 0 0 1 -> 0 8
    dump 0 4 -> e0380c00
    fill 0 -> 0 32
    trace 6 1 9 4 1 -> 0 4
    dump 0 4 -> 00020301
    fill 0 -> 0 32
    line 8 2 7 4 1 -> 0 0
    trace 8 2 7 4 1 -> 0 1
    dump 0 4 -> 00000001
    trace -1 0 -1 9 1 -> 0 0
    trace 3 3 3 3 1 -> 0 1
    trace 0 0 131072 0 2 -> 4 0
    trace 0 0 131072 0 1 -> 5 0
    dump 0 4 -> 00000011
    frame 8 4 1 0 3 1 -> 0 4
    trace 0 0 131072 0 2 -> 3 0
    frame 2049 4 1 0 3 257 -> 2 0
    trace 0 0 131072 0 2 -> 2 0
    frame 2049 4 3 0 3 769 -> 1 0
    trace 0 0 131072 0 2 -> 1 0
read-back frame 10 3 1 0 8 2 -> 0 6
    preset 255 -> 0
    bytes 0 50340d0a303031300920330a803f0040ffc0 -> 0
    load 0 -> 11
    load 1 -> 11
    load 11 -> 11
    load 12 -> 12
    load 17 -> 12
    dump 0 8 -> ffffffffffffffff
    load 18 -> 0
    dump 0 8 -> 803f007fffffffff
    preset 0 -> 0
    load 65536 -> 0
    dump 0 8 -> 80000040ffc00000
    load 65537 -> bad line
    file 0 20 -> 50340d0a303031300920330a803f0040ffc00000
    frame 10 4 1 0 8 2 -> 0 8
    load 11 -> 11
    load 12 -> 13
    load 65536 -> 13
    frame 11 3 1 0 6 2 -> 0 6
    load 18 -> 13
    frame 3 10 1 0 10 1 -> 0 10
    load 18 -> 13
    frame 10 3 8 0 30 10 -> 0 30
    load 18 -> 11
    frame 10 3 2 0 9 3 -> 0 9
    load 0 -> 10
    frame 0 3 1 0 0 0 -> 0 0
    load 0 -> 10
    frame 10 0 1 0 0 2 -> 0 0
    load 18 -> 10
    frame 10 3 2 0 8 3 -> 0 9
    load 18 -> 3
    frame 2049 3 1 0 8 257 -> 2 0
    load 18 -> 2
    frame 2049 3 3 0 8 769 -> 1 0
    load 18 -> 1
red-first frame 1 1 24 0 4 3 -> 0 3
    preset 9 -> 0
    bytes 0 50360a3120310a3235350a010203 -> 0
    load 14 -> 0
    read 0 0 -> 0 66051
    dump 0 5 -> 0302010909
    frame 1 1 24 1 4 3 -> 0 3
    load 14 -> 0
    read 0 0 -> 0 66051
    dump 0 4 -> 01020300
    pixel 0 0 5 -> 0 1
    image 65536 -> 0 14
    pixel 0 0 9 -> 0 1
    load 14 -> 0
    dump 0 3 -> 000005
shown bytes 65535 a5 -> 0
    bytes 65535 a5a5 -> bad line
    bytes 65536 00 -> bad line
    file 65534 2 -> 00a5
    bytes 65534 0a -> 0
    bytes 0 0A -> bad line
    bytes 0 0 -> bad line
    bytes 0 000 -> bad line
    bytes 0 ababababababababababababababababababababababababababababababababababababababababababababababababab -> bad line
    bytes 1 abababababababababababababababababababababababababababababababababababababababababababababababab -> 0
    bytes 3 0102 -> 0
    file 0 50 -> 50abab0102abababababababababababababababababababababababababababababababababababababababababababab00
    file 65534 2 -> 0aa5
    file 61440 4097 -> bad line
    file 65535 2 -> bad line
    dump 61440 4097 -> bad line
    dump 65535 2 -> bad line
    dump 65536 1 -> bad line
    dump 65535 1 -> 00
white frame 1 1 8 0 1 1 -> 0 1
    bytes 0 50350b3120310a3235350a07 -> 0
    load 12 -> 11
    bytes 2 0c -> 0
    load 12 -> 11
    bytes 2 09 -> 0
    load 12 -> 0
    bytes 10 0b -> 0
    load 12 -> 11
    bytes 10 0c -> 0
    load 12 -> 11
    bytes 10 0d -> 0
    load 12 -> 0
    dump 0 1 -> 07
apart frame 10 3 1 0 14 4 -> 0 12
    preset 255 -> 0
    fill 0 -> 0 30
    dump 0 14 -> 003fffff003fffff003fffffffff
    pixel 9 1 1 -> 0 1
    line 0 2 9 2 1 -> 0 10
    pixel 16 0 1 -> 0 0
    pixel 10 2 1 -> 0 0
    dump 0 14 -> 003fffff007fffffffffffffffff
    read 9 1 -> 0 1
    read 9 0 -> 0 0
    read 10 0 -> 8 0
    lit -> 0 11
    imagesize -> 0 14
    wipe 170 -> 0
    image 14 -> 0 14
    file 0 16 -> 50340a313020330a00000040ffc0aaaa
    triangle 0 0 9 0 0 9 1 -> 0 27
    trace -3 1 12 1 0 -> 0 10
    outline 9 0 9 2 9 2 0 -> 0 3
    circle 0 0 3 0 -> 0 5
    dump 0 14 -> bfbfffff003fffffbfbfffffffff
    load 14 -> 0
    dump 0 14 -> 003fffff007fffffffffffffffff
    frame 10 3 1 0 12 4 -> 0 12
    load 13 -> 12
    load 14 -> 0
    dump 0 13 -> 0000000000400000ffc0000000
last-gap frame 10 3 1 0 11 4 -> 0 12
    fill 1 -> 3 0
    lit -> 3 0
    read 0 0 -> 3 0
    image 65536 -> 3 0
    load 65536 -> 3
    dump 0 12 -> 000000000000000000000000
distance frame 10 3 1 0 6 2 -> 0 6
    frame 10 3 1 0 6 1 -> 14 0
    frame 10 3 1 0 6 0 -> 14 0
    frame 10 3 1 0 49152 16384 -> 0 49152
    frame 10 3 1 0 65536 16385 -> 14 0
    frame 10 3 1 0 65536 4294967295 -> 14 0
    frame 10 3 1 0 65536 -> bad line
    frame 10 3 1 0 65536 2 2 -> bad line
    frame 10 3 1 0 65536 4294967296 -> bad line
    frame 10 3 1 0 65536 -1 -> bad line
    fill 0 -> 14 0
    frame 2048 2048 32 0 0 8192 -> 0 16777216
    frame 2048 2048 32 0 0 16384 -> 0 33554432
    frame 2048 2048 32 0 0 8191 -> 14 0
    frame 3 2 24 0 0 9 -> 0 18
    frame 3 2 24 0 0 8 -> 14 0
    frame 5 2 4 0 0 3 -> 0 6
    frame 5 2 4 0 0 2 -> 14 0
    frame 0 3 32 0 0 0 -> 0 0
    frame 0 3 32 0 0 7 -> 0 21
    frame 3 0 32 0 0 12 -> 0 0
    frame 3 0 32 0 0 11 -> 14 0
    frame 3 0 32 0 0 16384 -> 0 0
first-reason frame 2049 3 3 0 0 0 -> 1 0
    fill 2 -> 1 0
    frame 2049 3 1 0 0 0 -> 2 0
    fill 2 -> 2 0
    imagesize -> 2 0
    frame 10 3 1 0 0 1 -> 14 0
    pixel 0 0 2 -> 14 0
    fill 2 -> 14 0
    line 0 0 131072 0 2 -> 14 0
    trace 0 0 131072 0 2 -> 14 0
    triangle 0 0 131072 0 0 0 2 -> 14 0
    outline 0 0 131072 0 0 0 2 -> 14 0
    circle 0 0 131073 2 -> 14 0
    read 10 0 -> 14 0
    lit -> 14 0
    imagesize -> 14 0
    image 0 -> 14 0
    load 0 -> 14
    frame 10 3 2 0 0 16385 -> 14 0
    lit -> 14 0
    imagesize -> 14 0
    image 0 -> 14 0
    load 0 -> 14
    frame 10 3 2 0 8 3 -> 0 9
    imagesize -> 10 0
    lit -> 3 0
    load 0 -> 3
three-bytes frame 2 2 24 0 18 8 -> 0 16
    preset 170 -> 0
    pixel 1 1 66051 -> 0 1
    dump 0 18 -> aaaaaaaaaaaaaaaaaaaaaa030201aaaaaaaa
    fill 1 -> 0 4
    dump 0 18 -> 010000010000aaaa010000010000aaaaaaaa
    image 65536 -> 0 23
    file 0 23 -> 50360a3220320a3235350a000001000001000001000001
    frame 2 2 24 1 23 16384 -> 0 32768
    load 23 -> 3
    frame 2 2 24 1 32768 16384 -> 0 32768
    load 23 -> 0
    dump 16380 12 -> 000000000000010000010000
"""

# Files for a grey frame of 2 by 1 pixels, what reading each answers, and the frame's bytes after it.
FILES = [
    (b"P5\n2 1\n255\n\x07\xc8", 0, "07c8"),
    (b"P5 2\t\t1\r255\r\n ", 0, "0a20"),
    (b"P5\n0002 01 0255\n9#", 0, "3923"),
    (b"P5\n2 1\n255\n78 and more", 0, "3738"),
    # Comments, signs and white space that is none of the four.
    (b"P5\n# by hand\n2 1\n255\n\x07\xc8", 11, "3738"),
    (b"P5\n2 1#\n255\n\x07\xc8", 11, "3738"),
    (b"P5\n-2 1\n255\n\x07\xc8", 11, "3738"),
    (b"P5\n+2 1\n255\n\x07\xc8", 11, "3738"),
    (b"P5\n2 1 \v255\n\x07\xc8", 11, "3738"),
    (b"P5\n2\x001\n255\n\x07\xc8", 11, "3738"),
    # The magic: of another format, in lower case, behind a space, without white space behind it.
    (b"P6\n2 1\n255\n\x07\xc8", 11, "3738"),
    (b"P2\n2 1\n255\n7 200\n", 11, "3738"),
    (b"p5\n2 1\n255\n\x07\xc8", 11, "3738"),
    (b" P5\n2 1\n255\n\x07\xc8", 11, "3738"),
    (b"P52 1\n255\n\x07\xc8", 11, "3738"),
    # Five digits, and none.
    (b"P5\n00002 1\n255\n\x07\xc8", 11, "3738"),
    (b"P5\n2 1\n00255\n\x07\xc8", 11, "3738"),
    (b"P5\n2 1\n65535\n\x07\xc8", 11, "3738"),
    (b"P5\n2 1\n \n\x07\xc8", 11, "3738"),
    (b"P5\n", 11, "3738"),
    # The maximum, before the size is looked at.
    (b"P5\n2 1\n254\n\x07\xc8", 11, "3738"),
    (b"P5\n2 1\n256\n\x07\xc8", 11, "3738"),
    (b"P5\n9 9\n25\n", 11, "3738"),
    # The size, before the pixels are counted.
    (b"P5\n1 2\n255\n\x07\xc8", 13, "3738"),
    (b"P5\n0 1\n255\n\x07\xc8", 13, "3738"),
    (b"P5\n9999 1\n255\n\x07\xc8", 13, "3738"),
    (b"P5\n9 9\n255\n", 13, "3738"),
    # The end: within the maximum, behind it, behind the byte that closes the header, within the pixels.
    (b"P5\n2 1\n25", 11, "3738"),
    (b"P5\n2 1\n255", 11, "3738"),
    (b"P5\n2 1\n255\n", 12, "3738"),
    (b"P5\n2 1\n255\n\x07", 12, "3738"),
    (b"P5\n2 1\n255\n\x07\xc8", 0, "07c8"),
]


def known():
    """The lines and answers of KNOWN and of FILES, with tabs."""
    for row in KNOWN.strip().splitlines():
        head = "" if row[0] == " " else row.split()[0]
        asked, answer = row.removeprefix(head).strip().split(" -> ")
        yield asked.replace(" ", "\t"), answer if answer == "bad line" else answer.replace(" ", "\t")
    yield "frame\t2\t1\t8\t0\t2\t2", "0\t2"
    for file, number, shown in FILES:
        yield from [(f"bytes\t0\t{file.hex()}", "0"), (f"load\t{len(file)}", str(number)), ("dump\t0\t2", shown)]
