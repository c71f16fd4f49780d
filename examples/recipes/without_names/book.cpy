           05  CUST-NO     PIC 9(4).
           05  NAME        PIC X(8).
           05  PHONE       PIC 9(6).
           05  BALANCE     PIC S9(5) COMP-3.
           05  FILLER      PIC X(2).
