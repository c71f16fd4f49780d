       01  ACCOUNT-REC.
           05  ACCOUNT-NO  PIC 9(4).
           05  BALANCE     PIC S9(5) COMP-3.
