# The sample `pass`: it enters the machine inside for ever.
start:  li x5, 0x1000   # the block of the machine inside is on page 1
again:  vmenter x5      # run it
        j again         # until there is something to do, of which this monitor knows nothing
