/* Numbers and texts that others read. */
export const most: number = 1024;
export const least: number = 0.5;
export const unit: string = "px";
export const rounded: boolean = true;
