       01  CUST.
           05  CUST-NO     PIC 9(6).
           05  BALANCE     PIC S9(7)V99 COMP-3.
