       01  IN-REC.
           05 A00 PIC S9(16)V99 COMP-3.
           05 A01 PIC S9(16)V99 COMP-3.
           05 A02 PIC S9(16)V99 COMP-3.
           05 A03 PIC S9(16)V99 COMP-3.
           05 A04 PIC S9(16)V99 COMP-3.
