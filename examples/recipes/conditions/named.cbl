           MOVE CUST-NO OF CUST TO CUST-NO OF CUST-NEW.
           EVALUATE TRUE
               WHEN ACTIVE
                   MOVE "ACTIVE" TO STATE
               WHEN BLOCKED
                   MOVE "BLOCKED" TO STATE
               WHEN OTHER
                   MOVE "UNKNOWN" TO STATE
           END-EVALUATE.
           IF NOT BLOCKED AND CREDIT-LIMIT OF CUST NUMERIC
               MOVE CREDIT-LIMIT OF CUST TO CREDIT-LIMIT OF CUST-NEW
           END-IF.
