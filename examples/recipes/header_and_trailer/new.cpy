       01  BOOKING-NEW.
           05  ACCOUNT     PIC 9(10).
           05  AMOUNT      PIC S9(9)V99 COMP-3.
