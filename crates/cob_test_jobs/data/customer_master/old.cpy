      * A customer as the old master file keeps it: 42 bytes.
       01  CUSTOMER-OLD.
           05  CUST.
               10  CUST-NO         PIC 9(6).
               10  NAME            PIC X(12).
               10  BALANCE         PIC S9(7)V99 COMP-3.
               10  CREDIT-LIMIT    PIC 9(5) COMP-3.
               10  DATES.
                   15  OPENED      PIC 9(8).
                   15  LAST-MOVED  PIC 9(8).
