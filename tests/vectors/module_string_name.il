module "m"
