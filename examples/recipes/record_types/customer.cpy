       01  CUST.
           05  KIND        PIC X.
           05  CUST-NO     PIC 9(4).
           05  NAME        PIC X(6).
