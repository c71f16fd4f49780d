       01  ACCOUNT-NEW.
           05  ACCOUNT-NO  PIC 9(8).
           05  NAME        PIC X(6).
           05  BALANCE     PIC S9(7)V99 COMP-3.
           05  OPENED      PIC 9(8).
