       01  OUT-REC.
           05 O-CUST-NUMBER PIC 9(12).
           05 O-ACCOUNT-NUMBER PIC S9(13) COMP-3.
           05 O-CUST-KIND PIC X(2).
           05 O-CUST-NAME PIC X(50).
           05 O-SORT-NAME PIC X(20).
           05 O-BORN-ON PIC 9(8).
           05 O-JOINED-ON PIC X(8).
           05 O-CHANGED-ON PIC X(8).
           05 O-STREET PIC X(35).
           05 O-CITY PIC X(30).
           05 O-POSTCODE PIC X(10).
           05 O-COUNTRY PIC X(3).
           05 O-MAIL-NAME PIC X(40).
           05 O-MAIL-STREET PIC X(35).
           05 O-MAIL-CITY PIC X(25).
           05 O-MAIL-POSTCODE PIC X(10).
           05 O-PHONE PIC X(20).
           05 O-BALANCE PIC S9(13)V99 COMP-3.
           05 O-BALANCE-TEXT PIC ZZ,ZZZ,ZZZ,ZZ9.99-.
           05 O-BALANCE-OPENED PIC S9(11)V99.
           05 O-CREDIT-LIMIT PIC S9(11)V99.
           05 O-LIMIT-TEXT PIC Z(8)9.99-.
           05 O-OVERDUE PIC S9(9)V99 COMP-3.
           05 O-OVERDUE-TEXT PIC $$$$,$$$,$$9.99CR.
           05 O-ORDERS PIC 9(9).
           05 O-ORDERS-TEXT PIC Z(8)9.
           05 O-LAST-ORDER PIC S9(13) COMP-3.
           05 O-DISCOUNT PIC 9(3)V9(4).
           05 O-BRANCH PIC 9(5) COMP-3.
           05 O-HOME-BRANCH PIC S9(9) COMP.
           05 O-REGION PIC X(4).
           05 O-QUARTER OCCURS 4.
               10 O-TURNOVER PIC S9(13)V99.
           05 O-LATEST-TEXT PIC -(12)9.99.
           05 O-LETTER-KIND PIC X(4).
           05 O-RESERVED PIC X(12).
