       01  LINE-IN.
           05  ACCOUNT-NO  PIC 9(4).
           05  FILLER      PIC X.
           05  NAME        PIC X(8).
           05  BALANCE     PIC -(5)9.99.
