// What the program starts with.
export const title: string = 'Shapes';
export const verbose: boolean = false;
export const most: number = 0x400;
