      * A policy in the new layout: 45 bytes at most.
       01  POLICY-NEW.
           05  POLICY-NO       PIC X(8).
           05  AGENT           PIC X(5).
           05  COVER-COUNT     PIC 99.
           05  CLAIM-COUNT     PIC 99.
           05  COVERS.
               10  COVER OCCURS 1 TO 3 DEPENDING ON COVER-COUNT.
                   15  KIND    PIC X(2).
                   15  PREMIUM PIC S9(3)V99 COMP-3.
                   15  CLAIM   PIC 9(4) COMP
                       OCCURS 0 TO 2 DEPENDING ON CLAIM-COUNT.
           05  STATE-CODE      PIC X.
