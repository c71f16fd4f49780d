       01  TRAILER.
           05  KIND        PIC X.
           05  BOOKINGS    PIC 9(8).
           05  TOTAL       PIC S9(9)V99 COMP-3.
           05  FILLER      PIC X(5).
