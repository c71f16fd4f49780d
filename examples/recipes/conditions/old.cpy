       01  CUST.
           05  CUST-NO       PIC 9(4).
           05  STATUS-CODE   PIC X(2).
           05  CREDIT-LIMIT  PIC 9(5) COMP-3.
