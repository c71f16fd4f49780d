      * A booking on an account: 43 bytes.
       01  BOOKING.
           05  ACCOUNT     PIC 9(8).
           05  BOOKED      PIC 9(8).
           05  REASON      PIC X(16).
           05  AMOUNT      PIC S9(7)V99 COMP-3.
           05  BALANCE     PIC S9(9)V99 COMP-3.
