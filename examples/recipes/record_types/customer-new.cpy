       01  CUST-NEW.
           05  KIND        PIC X.
           05  CUST-NO     PIC 9(6).
           05  NAME        PIC X(8).
