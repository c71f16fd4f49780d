       01  DCLCUSTOMER.
           10 CUST-ID              PIC S9(9) USAGE COMP-5.
           10 CUST-NAME.
              49 CUST-NAME-LEN     PIC S9(4) USAGE COMP-5.
              49 CUST-NAME-TEXT    PIC X(12).
           10 BALANCE              PIC S9(5)V9(2) USAGE COMP-3.
           10 RATING               USAGE COMP-2.
