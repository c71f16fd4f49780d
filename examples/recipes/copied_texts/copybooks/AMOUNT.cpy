           05  AMOUNT      PIC S9(5)V99 COMP-3.
           05  RATE        PIC 9(3Q).
