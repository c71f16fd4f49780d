       01  CUSTOMER.
           05  CUST-ID       PIC 9(10).
           05  NAME          PIC X(16).
           05  BALANCE       PIC S9(7)V99 COMP-3.
           05  BALANCE-NULL  PIC X VALUE "N".
