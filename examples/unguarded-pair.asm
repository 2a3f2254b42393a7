version 2
classes 2
global 0
global 0
global 1
global 1
entry 0
fn 1 5
glob r1, g0
glob r2, g1
glob r3, g2
glob r4, g3
jz r0, 8
acq 1
store r2, r4
jmp 7
acq 0
store r1, r3
jmp 10
list
expr r1 write
expr r3 write
expr r2 * write
list
expr r2 write
expr r4 write
expr r1 * write
