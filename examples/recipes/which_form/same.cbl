           MOVE REC TO REC-NEW.
