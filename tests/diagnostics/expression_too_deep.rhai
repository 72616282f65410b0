if total { b }
