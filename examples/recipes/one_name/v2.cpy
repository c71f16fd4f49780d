       01  CUST-REC.
           05  CUST-NO     PIC 9(6).
           05  NAME        PIC X(8).
           05  COUNTRY     PIC X(2) VALUE "DE".
