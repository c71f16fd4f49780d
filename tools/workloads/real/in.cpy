       01  IN-REC.
           05 CUST-ID PIC 9(8).
           05 CUST-NAME.
               10 LAST-NAME PIC X(20).
               10 FIRST-NAME PIC X(15).
           05 CUST-ADDRESS.
               10 STREET PIC X(25).
               10 CITY PIC X(18).
               10 DISTRICT PIC X(2).
               10 POSTCODE PIC X(8).
           05 OPENED-ON.
               10 OPENED-YEAR PIC 9(4).
               10 OPENED-MONTH PIC 9(2).
               10 OPENED-DAY PIC 9(2).
           05 PAID-ON.
               10 PAID-YEAR PIC 9(4).
               10 PAID-MONTH PIC 9(2).
               10 PAID-DAY PIC 9(2).
           05 BALANCE PIC S9(9)V99 COMP-3.
           05 CREDIT-LIMIT PIC S9(7)V99 COMP-3.
           05 RATE-NOW PIC 9(3)V9(4) COMP-3.
           05 BRANCH PIC S9(4) COMP.
           05 SERIAL PIC S9(9) COMP.
           05 STATE-CODE PIC X.
           05 RISK PIC 9(2).
           05 PHONE PIC X(14).
           05 AMOUNT-DUE PIC S9(7)V99.
           05 PAYMENT OCCURS 5.
               10 PAID PIC S9(5)V99 COMP-3.
               10 PAID-DAYS PIC 9(3).
           05 REMARK OCCURS 5.
               10 REMARK-TEXT PIC X(9).
           05 AGENT PIC X(10).
           05 FILLER PIC X(8).
