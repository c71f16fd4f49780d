       01  CUST-NEW.
           05  CUST-NO     PIC 9(4).
           05  BALANCE     PIC S9(9)V99 COMP-3.
           05  OPENED      PIC 9(8).
