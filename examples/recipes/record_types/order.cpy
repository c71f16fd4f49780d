       01  ORD.
           05  KIND        PIC X.
           05  CUST-NO     PIC 9(4).
           05  ITEM        PIC 9(3) COMP-3.
