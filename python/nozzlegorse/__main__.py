"""`python -m nozzlegorse WORDS` is the program usbdesc, which is installed beside this interpreter."""
import os
import shutil
import sys
import sysconfig

program = shutil.which("usbdesc", path=sysconfig.get_path("scripts")) or shutil.which("usbdesc")
if not program:
    sys.exit("nozzlegorse: the program usbdesc isn't installed")
os.execv(program, [program, *sys.argv[1:]])
