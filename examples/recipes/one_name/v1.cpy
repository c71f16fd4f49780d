       01  CUST-REC.
           05  CUST-NO     PIC 9(4).
           05  NAME        PIC X(6).
