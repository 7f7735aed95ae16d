# Tiny tasks for docs/CLAIMS.md, each with few cache blocks. A cache line has 16 bytes; with 8 cache
# sets the label's comment says which sets a task fills, and which are useful to it.
    .file "tasks.s"
    .text

    .macro place set                  # the next word is the first one of this cache set
    .balign 128
    .if \set
    .skip \set * 16
    .endif
    .endm

    .macro step                       # to the first word of the next line
    j 1f
    .balign 16
1:
    .endm

    .macro global name
    .globl \name
    .type \name, @function
\name:
    .endm

# Fills 1 2 3 4, none is useful.
    place 1
    global four
    step
    step
    step
    ecall

# Fills all 8, none is useful.
    place 0
    global all
    .rept 7
    step
    .endr
    ecall

# Fills 5, which is not useful.
    place 5
    global aside
    ecall

# Fills 1 2, both useful: it goes from line 1 to line 2, back, and on.
    place 1
    global upper
    j 2f
1:  j 3f
    .balign 16
2:  j 1b
3:  ecall

# Fills 3 4, both useful, in the same way.
    place 3
    global lower
    j 2f
1:  j 3f
    .balign 16
2:  j 1b
3:  ecall

# Fills 1 2 3 4, of which 1 2 are useful: as `upper`, and on through two further lines.
    place 1
    global wide
    j 2f
1:  j 3f
    .balign 16
2:  j 1b
3:  step
    step
    ecall

# Two instructions in set 0, which is useful.
    place 0
    global two
    li t0, 1
    ecall

# The same in another block of set 0.
    place 0
    global other
    li t0, 1
    ecall

# Four instructions in set 0, which is useful.
    place 0
    global steps
    li t0, 1
    li t0, 1
    li t0, 1
    ecall

# One instruction in set 1, then two in set 0, which is useful.
    place 1
    global late
    j 1f
    place 0
1:  li t0, 1
    ecall

# Four instructions in each of the sets 1 and 2: at each node at most one set is useful.
    place 1
    global lines
    li t0, 1
    li t0, 1
    li t0, 1
    li t0, 1
    li t0, 1
    li t0, 1
    li t0, 1
    ecall

# The same sets by another block.
    place 1
    global evict
    li t0, 1
    li t0, 1
    li t0, 1
    li t0, 1
    li t0, 1
    li t0, 1
    li t0, 1
    ecall

# A loop of two instructions, one in set 1 and one in set 2. Each turn is counted with both loads
# unless blocks that stay count once.
    place 0
    .skip 8
    global turns
    li t0, 3
    j 1f
    .balign 16
    .skip 12
1:  addi t0, t0, -1
    bnez t0, 1b
    ecall
