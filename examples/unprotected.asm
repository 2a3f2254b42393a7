version 2
classes 1
global 0
entry 0
fn 1 3
glob r1, g0
load r2, r1
ret r0
