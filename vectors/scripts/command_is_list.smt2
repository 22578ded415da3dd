((exit))
