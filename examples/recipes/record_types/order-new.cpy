       01  ORD-NEW.
           05  KIND        PIC X.
           05  CUST-NO     PIC 9(6).
           05  ITEM        PIC 9(5).
