      * A customer in the wider layout: 64 bytes.
       01  CUSTOMER-NEW.
           05  CUSTOMER.
               10  NAME            PIC X(20).
               10  CUST-NO         PIC 9(8).
               10  BALANCE         PIC S9(9)V99 COMP-3.
               10  CREDIT-LIMIT    PIC 9(7)V99 COMP-3.
               10  DATES.
                   15  LAST-MOVED  PIC 9(8).
                   15  OPENED      PIC 9(8).
                   15  CLOSED      PIC 9(8).
               10  STATUS-CODE     PIC X VALUE "A".
