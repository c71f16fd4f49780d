       01  BOOKING.
           05  KIND        PIC X.
           05  ACCOUNT     PIC 9(8).
           05  AMOUNT      PIC S9(7)V99 COMP-3.
           05  FILLER      PIC X(6).
