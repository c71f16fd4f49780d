      * A line of the printed statement: 69 bytes.
       01  PRINT-LINE.
           05  ACCOUNT-P   PIC 9(4)B9(4).
           05  FILLER      PIC X(2).
           05  BOOKED-P    PIC 9(4)/99/99.
           05  FILLER      PIC X(2).
           05  REASON-P    PIC X(16).
           05  AMOUNT-P    PIC Z,ZZZ,ZZ9.99-.
           05  BALANCE-P   PIC $$$$,$$$,$$9.99CR.
