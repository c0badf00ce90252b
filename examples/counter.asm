; A counter: it adds one to the two bytes at the front of its static segment, and answers them.
        INCN SB[0],2    ; one more
        LOAD SB[0],2
        STORE PB[0],2   ; the reply
        EXITLA 2
