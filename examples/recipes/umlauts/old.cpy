       01  CUST.
           05  NAME        PIC X(6).
           05  CITY        PIC X(6).
           05  BALANCE     PIC S9(5) COMP-3.
