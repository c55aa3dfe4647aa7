thread 0             thread 1
                     x is 0
                     y = 1 (late by 1)
                     seen[1] = 0
                     notify
y is 1
x = 1 (late by 1)
seen[0] = 1
notify
wait
seen[0] is 1
seen[1] is 0
prints "y 1, x 0\n"
                     wait (had to wait)
thread 0: ended 0
thread 1: ended 0
