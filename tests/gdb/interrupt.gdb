# s360gdb
# Ctrl-C, which the signal of a timer stands for: in a run without end, in one that steps since a register is watched, and backward. BCT
# 3,200 at 200 branches to itself, and counts register 3.
set var *(int*)0x200 = 0x46300200
set var $pc = 0x200
python import os, signal, threading
python threading.Timer(0.5, os.kill, [os.getpid(), signal.SIGINT]).start()
continue
# it goes on from there, and back
stepi
print $r3 < -100000
watch $r9
python threading.Timer(0.5, os.kill, [os.getpid(), signal.SIGINT]).start()
continue
delete
reverse-continue
monitor standing
continue
kill
