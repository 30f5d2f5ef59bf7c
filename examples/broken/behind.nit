view 
