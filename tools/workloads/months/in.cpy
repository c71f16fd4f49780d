       01  IN-REC.
           05 ACCOUNT PIC X(10).
           05 BRANCH PIC 9(4).
           05 MON OCCURS 12.
               10 TAKEN PIC S9(7)V99.
               10 PAID PIC S9(7)V99.
               10 UNITS PIC 9(5).
