       01  CUST-NEW.
           05  CUST-NO       PIC 9(4).
           05  STATE         PIC X(7).
           05  CREDIT-LIMIT  PIC 9(7) COMP-3.
