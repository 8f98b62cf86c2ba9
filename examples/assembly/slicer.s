# The sample `slicer`: two machines by turns. Hart h has their blocks on the pages 1 + 2h and 2 + 2h, and turns at each timer interrupt.
        csrr x6, mhartid
        slli x6, x6, 13
        li x5, 0x1000
        add x5, x5, x6
        li x7, 0x3000
        add x7, x7, x6
        add x7, x7, x6
        la x6, tick
        csrw mtvec, x6
        li x6, 0x80
        csrw mie, x6
        csrrsi x0, mstatus, 8
again:  vmenter x5
        j again
tick:   sub x5, x7, x5
        mret
