drive
