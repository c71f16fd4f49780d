       01  OUT-REC.
           05 B00 PIC S9(18) COMP-3.
           05 B01 PIC S9(18).
           05 B02 PIC S9(16)V99.
           05 B03 PIC S9(18) COMP.
           05 B04 PIC S9(18) COMP-3.
           05 B05 PIC S9(18).
           05 B06 PIC S9(16)V99.
           05 B07 PIC S9(18) COMP.
           05 B08 PIC S9(18) COMP-3.
           05 B09 PIC S9(18).
           05 B10 PIC S9(16)V99.
           05 B11 PIC S9(18) COMP.
           05 B12 PIC S9(18) COMP-3.
           05 B13 PIC S9(18).
           05 B14 PIC S9(16)V99.
           05 B15 PIC S9(18) COMP.
           05 B16 PIC S9(18) COMP-3.
           05 B17 PIC S9(18).
           05 B18 PIC S9(16)V99.
           05 B19 PIC S9(18) COMP.
