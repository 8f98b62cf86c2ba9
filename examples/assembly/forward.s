# The sample `forward`: it hands the first raised lines on to the machine inside, once (mie is 0 from then on).
        la x6, tick
        csrw mtvec, x6
        li x6, 0x888
        csrw mie, x6
        li x5, 0x1000
        csrrsi x0, mstatus, 8
again:  vmenter x5
        j again
tick:   csrr x6, mip
        csrr x8, mie
        and x6, x6, x8
        lw x7, 168(x5)
        or x7, x7, x6
        sw x7, 168(x5)
        csrw mie, x0
        mret
