"""What the tools share. Nothing here is proved: every verdict on a transfer is the program's, which is asked for it."""

NOT_PROVED = "This tool isn't proved. Every verdict on a transfer is that of the usbnet program, which is asked for it."
