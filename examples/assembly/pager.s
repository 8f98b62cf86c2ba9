# The sample `pager`: it gives the machine inside its page 3 + i as page i when that is first missed, by the entry in the table on page 2.
        li x5, 0x1000
again:  vmenter x5
        lw x6, 288(x5)
        li x7, 1
        bne x6, x7, again
        lw x6, 292(x5)
        srli x6, x6, 12
        addi x7, x6, 3
        slli x7, x7, 12
        ori x7, x7, 3
        slli x6, x6, 2
        li x8, 0x2000
        add x8, x8, x6
        sw x7, 0(x8)
        j again
