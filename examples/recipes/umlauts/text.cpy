       01  LINE-OUT.
           05  NAME        PIC X(6).
           05  FILLER      PIC X.
           05  CITY        PIC X(6).
           05  FILLER      PIC X.
           05  BALANCE     PIC -(5)9.
